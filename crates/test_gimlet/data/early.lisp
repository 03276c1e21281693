((HALF-ADDER (A B) (SUM CARRY)
  (((SUM) (B-XOR A B))
   ((CARRY) (B-AND A Sum1))
   ((SUM1) (B-BUF A)))))
