def main() {
    clocked finish clocked async ;
    finish {
        for (i in 1..2) finish async ;
        async finish async ;
    }
}
