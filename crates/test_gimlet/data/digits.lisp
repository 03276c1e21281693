((17 (A) (B) (((B) (B-NOT A)))) (16 (A) (B) (((B) (B-BUF A)))))
