def main() {
    finsh { async Console.OUT.println(1); }
}
