((HALF-ADDER (A B) (SUM)
  (((SUM) (B-XOR A B))
   ((CARRY) (B-EQUV A B)))))
