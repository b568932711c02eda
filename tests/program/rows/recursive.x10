def f() { g(); } def g() { f(); } def main() { f(); }
