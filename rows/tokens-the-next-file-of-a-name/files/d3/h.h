in_d3
