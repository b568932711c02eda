def main() {
    val ﻿n = 1;
}
