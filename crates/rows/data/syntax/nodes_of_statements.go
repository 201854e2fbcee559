package main
func a(){{f()}}
func b(){var x, y int = 1, 2}
func c(){go f(1, a)}
func d(){return <-c}
func e(){return; break;}
func f(){if x++; a {} else {}}
func g(){if a {} else if b {}}
func h(){for x = range c {}}
func i(){select {}}
func j(){select {default: }}
func k(){select {case <-c: f(); }}