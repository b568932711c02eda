def main() {
  finish {
    val c = Clock.make();
    async clocked (c) { Clock.advanceAll(); for (i in 1..2) { if (i == 1) { c.drop(); } } }
    c.drop();
  }
}
