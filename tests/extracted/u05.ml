type t = { mutable f0 : int; mutable f1 : int; mutable f2 : int; mutable f3 : int; mutable f4 : int; mutable f5 : int; mutable f6 : int; mutable f7 : int; mutable f8 : int; mutable f9 : int; mutable f10 : int; mutable f11 : int; mutable f12 : int; mutable f13 : int; mutable f14 : int; mutable f15 : int }
external read : int -> int = "READ"
external peek : int -> int = "PEEK"
external sound : int -> int -> int = "SOUND"
external lamp_2 : int -> int -> int = "LAMP_2"
external log : int -> int -> int -> int = "LOG"
external valve : int -> int -> int -> int -> int = "VALVE"
external pump : int -> int -> int -> int -> int -> int = "PUMP"

let f1 () =
  (let v1 = (429) in (let b2 = (v1 = (-923)) in v1))

let f2 (a1 : int) (t2 : bool) (a3 : int) (r : t) (t4 : bool) (a5 : int) =
  (if ((a1) <> (r.f14)) then (pump ((ignore (read ((let v8 = peek ((if (not ((not ((r.f5) <> (a5))) || ((r.f1) > (r.f5)))) then ((ignore (lamp_2 (a1) (valve ((8)) (a5) (a5) (a5))); (let b6 = (a3 = (0)) in (603)))) else ((ignore (pump (((a5) + 14)) (((a5) - 4)) (((a5) - 163)) ((let v7 = a5 in (1))) ((0))); a5)))) in (46)))); a5)) ((-1)) (a5) (a5) (a5)) else (a5))
