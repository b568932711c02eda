def mian() {
}
