! How a source may be laid out: comments, continued lines, several statements on a line, and either case.
PROGRAM free_form
  integer :: first(4), second(4)

  First = 2; second = first * fi&   ! a name goes on behind the second &
                                &rst + 1
  print *, first, &
           second
end program free_form
