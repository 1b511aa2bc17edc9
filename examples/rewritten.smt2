; what has no meaning here, in words that have one

; (str.substr s 2 3) where s has five characters or more: the part behind the first two
(declare-const s String)
(declare-const before String)
(declare-const part String)
(declare-const behind String)
(assert (= s (str.++ before part behind)))
(assert (= (str.len before) 2))
(assert (= (str.len part) 3))
(assert (str.in_re part (re.+ (re.range "0" "9"))))

; (str.indexof t "; " 0) = 4: no "; " ends within the four characters and the first of "; "
(declare-const t String)
(declare-const first String)
(declare-const rest String)
(assert (= t (str.++ first "; " rest)))
(assert (= (str.len first) 4))
(assert (not (str.contains (str.++ first ";") "; ")))

; (ite (= n 0) "none" s) as a word: the choice stands outside
(declare-const n Int)
(declare-const text String)
(assert (ite (= n 0) (= text "none") (= text s)))
(assert (> n 0))
(assert (= (str.len text) 5))
(check-sat)
(get-value ((str.len first) (str.len text) (str.len part)))
