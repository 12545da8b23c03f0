@task
def greet(who): return 'Hello, ' + who + '!'
@task
def main(): return greet('World')
