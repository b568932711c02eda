// Words of other languages: a head without `def`, and a word near one of the language.
def work() { }

main() {
    finsh { async work(); }
}
