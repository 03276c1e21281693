((PICK (A B) (S)
  ((() (NONE))
   ((S) (B-not A B))))
 (NONE () () ()))
