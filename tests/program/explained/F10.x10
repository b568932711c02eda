def down() {
    up();
}

def up() {
    async down();
}

def main() {
    up();
}
