((EMPTY () () ()) (LOOSE (A) (B) ()))
