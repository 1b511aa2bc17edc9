(declare-const input String)
(assert (str.in_re input (re.+ re.none)))
(check-sat)
