int int
#error
