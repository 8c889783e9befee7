package prices

import "testing"

func TestTotal(t *testing.T) {
	if got := Total([]int{2, 3}, 0); got != 5 {
		t.Errorf("total is %d", got)
	}
}

func TestDiscount(t *testing.T) {
	if got := Total([]int{2, 3}, 1); got != 4 {
		t.Errorf("total is %d", got)
	}
}
