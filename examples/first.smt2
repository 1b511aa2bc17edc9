(declare-const x String)
(assert (str.in_re x (re.+ (re.range "a" "c"))))
(check-sat)
