program p; integer :: a(3); a = 2; print *, a; end
