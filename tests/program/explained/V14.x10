def main() {
    for (i in 1..1000) for (j in 1..1000) for (k in 1..1000) ;
}
