program squares
integer :: x(5), y(5), z(5)
x = 3
y = x * x - 2 * x + 1
z = y + y * x - 7
print *, x
print *, y, z
end
