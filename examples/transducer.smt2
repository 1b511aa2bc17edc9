; a filter that writes each capital letter from A to Z as a small one, and all other characters as they are: one state;
; an edge says from where, the first and the last character that it reads, what it writes, and where it leads
(define-transducer lower
  (s)
  s
  ((s "A" "Z" ((in 32)) s)
   (s "\u{0}" "@" (in) s)
   (s "[" "\u{2ffff}" (in) s))
  ((s ())))
(declare-const name String)
(declare-const written String)
(assert (lower name written))
(push)
; no capital letter comes through
(assert (str.in_re written (re.++ re.all (re.range "A" "Z") re.all)))
(check-sat)
(pop)
; but who asks for a name that isn't "admin" may be written as one
(assert (= written "admin"))
(assert (not (= name "admin")))
(check-sat)
(get-value (written (str.len name)))
