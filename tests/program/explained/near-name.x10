shared sum = 0;

def main() {
    finish for (i in 1..3) async atomic sum = sum + i;
    val last = smu;
}
