def main() {
    return /* a // break
    or continue */ // *** / *
    /***/ 1;
}
