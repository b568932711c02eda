// Four activities add 1 to 4. Each addition is one step, and main reads the sum when all have ended.
shared sum = 0;

def main() {
    finish {
        for (who in 1..4) async atomic sum = sum + who;
    }
    val all = sum;
    Console.OUT.println(all);
}
