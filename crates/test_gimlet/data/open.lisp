((HALF-ADDER (A B) (SUM CARRY)
  (((SUM) (B-XOR A B))
   ((CARRY) B-AND A B))))
