program wrapping
integer :: big(2), small(2)
big = 2147483647
small = big + 1
print *, big, small
small = small - 1 + big * big
print *, small
end
