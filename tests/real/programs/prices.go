// The program that the session with delve debugs.
package main

import "fmt"

type item struct {
	name  string
	price int
}

func total(items []item) int {
	result := 0
	for _, it := range items {
		result += it.price
	}
	return result
}

func main() {
	fmt.Println("total", total([]item{{"tea", 3}, {"milk", 4}}))
}
