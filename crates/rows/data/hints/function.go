package main

function main() {
}
