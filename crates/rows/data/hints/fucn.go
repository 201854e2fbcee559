package main

fucn main() {
}
