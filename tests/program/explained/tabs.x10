def main() {
	val c = Clock.make();
	finish {
		async clocked(c) Clock.advanceAll();
	}
}
