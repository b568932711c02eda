// Eight workers again: main starts two activities, of which each starts four.
def main() {
    finish {
        for (half in 1..2) async {
            for (who in 1..4) async {
                var x: Long = 0;
                for (i in 1..4) { x = x + i; }
            }
        }
    }
}
