// Package prices adds prices.
package prices

// Total is the sum of the prices, less the discount.
func Total(prices []int, discount int) int {
	sum := -discount
	for _, price := range prices {
		sum += price
	}
	return sum
}
