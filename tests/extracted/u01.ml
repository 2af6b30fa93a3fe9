type t = { mutable f0 : int; mutable f1 : int; mutable f2 : int; mutable f3 : int; mutable f4 : int; mutable f5 : int; mutable f6 : int }
external read : int -> int = "READ"
external peek : int -> int = "PEEK"
external sound : int -> int -> int = "SOUND"
external lamp_2 : int -> int -> int = "LAMP_2"
external log : int -> int -> int -> int = "LOG"
external valve : int -> int -> int -> int -> int = "VALVE"
external pump : int -> int -> int -> int -> int -> int = "PUMP"

let f1 (r : t) (a1 : int) (t2 : bool) =
  (let b3 = ((~- (r.f0)) >= ((a1) - (a1))) in pump (((if (not (not (((r.f6) - (r.f0)) <= ((a1) - (a1))))) then (ignore (valve ((2)) ((let m5 = ref ((r.f3 <- ((((if t2 then ((((-741)) + 291)) else (((a1) - ((-1)))))) - ((((let v4 = (-1) in v4)) + (((if ((a1) = (r.f4)) then (ignore (pump ((-1)) (a1) (a1) ((-1)) ((1))))); a1)))))); a1)) in (2))) (a1) (a1))) else (r.f3 <- (a1))); a1)) ((2)) (a1) ((2)) (a1))

let f2 (a1 : int) (t2 : bool) (a3 : int) (a4 : int) =
  sound ((ignore (peek (a4)); a4)) ((3))
