type t = { mutable f0 : int; mutable f1 : int; mutable f2 : int; mutable f3 : int; mutable f4 : int; mutable f5 : int; mutable f6 : int; mutable f7 : int; mutable f8 : int }
external read : int -> int = "READ"
external peek : int -> int = "PEEK"
external sound : int -> int -> int = "SOUND"
external lamp_2 : int -> int -> int = "LAMP_2"
external log : int -> int -> int -> int = "LOG"
external valve : int -> int -> int -> int -> int = "VALVE"
external pump : int -> int -> int -> int -> int -> int = "PUMP"

let f1 (r : t) (t1 : bool) (a2 : int) (t3 : bool) (t4 : bool) (t5 : bool) (a6 : int) =
  (let m7 = ref (log ((~- ((~- (sound ((0)) ((438))))))) (a6) ((0))) in a6)

let f2 (t1 : bool) (a2 : int) (a3 : int) (t4 : bool) (a5 : int) (a6 : int) (t7 : bool) (a8 : int) =
  (let b9 = (a3 <= (2)) in (let m10 = ref ((-189)) in (let b11 = (a2 < (900)) in (let v13 = (m10 := ((~- (a6))); (((let v12 = (((((4)) - (a8))) + ((4))) in v12)) + (a8))) in (let b14 = (v13 <> (2)) in (let v15 = (-776) in (2)))))))

let f3 (a1 : int) (a2 : int) (t3 : bool) (t4 : bool) (a5 : int) (a6 : int) (t7 : bool) (a8 : int) =
  (let b9 = (t4 || (((a8) < (a8)) && t3)) in (let v12 = (((ignore (read ((ignore (sound ((((ignore (read ((452))); (ignore (read ((((~- ((3)))) - ((let v10 = a8 in (-456)))))); ((if t7 then (ignore (lamp_2 ((((-550)) - (a8))) ((~- (a8))))) else (ignore (read (sound ((4)) ((444)))))); (let b11 = (a5 < (3)) in a8))))) + (a8))) ((4))); (-787)))); (665))) - ((-575))) in (3)))
