shared s = 0;
def main() {
    finish {
        async finish {
            async finish async s = 1;
            for (i in 1..9) async s = 2;
        }
        finish async s = 3;
    }
}
