type t = { mutable f0 : int; mutable f1 : int; mutable f2 : int; mutable f3 : int; mutable f4 : int; mutable f5 : int; mutable f6 : int; mutable f7 : int; mutable f8 : int; mutable f9 : int }
external read : int -> int = "READ"
external peek : int -> int = "PEEK"
external sound : int -> int -> int = "SOUND"
external lamp_2 : int -> int -> int = "LAMP_2"
external log : int -> int -> int -> int = "LOG"
external valve : int -> int -> int -> int -> int = "VALVE"
external pump : int -> int -> int -> int -> int -> int = "PUMP"

let f1 (a1 : int) =
  (~- ((ignore (sound (((if ((a1) >= (~- (a1))) then (ignore (read ((~- ((~- (a1))))))) else ((if ((a1) <> (~- (a1))) then (ignore (lamp_2 (a1) (((if (((~- (a1)) = (a1)) && ((~- (a1)) = ((a1) - (a1)))) then (ignore (peek ((~- ((let v2 = valve ((if ((a1) >= (a1)) then (a1) else (a1))) (a1) ((ignore (sound ((-592)) ((0))); (-291))) (valve ((-1)) (a1) (a1) ((101))) in (ignore (pump (v2) ((ignore (pump ((962)) ((-41)) ((-1)) ((4)) (v2)); v2)) (v2) (v2) ((3))); v2)))))))); (4)))))))); a1)) (a1)); (-1))))
