type t = { mutable f0 : int; mutable f1 : int; mutable f2 : int; mutable f3 : int; mutable f4 : int; mutable f5 : int; mutable f6 : int }
external read : int -> int = "READ"
external peek : int -> int = "PEEK"
external sound : int -> int -> int = "SOUND"
external lamp_2 : int -> int -> int = "LAMP_2"
external log : int -> int -> int -> int = "LOG"
external valve : int -> int -> int -> int -> int = "VALVE"
external pump : int -> int -> int -> int -> int -> int = "PUMP"

let f1 (a1 : int) (a2 : int) (a3 : int) (a4 : int) (a5 : int) (a6 : int) =
  (let m7 = ref ((ignore (valve ((if ((~- (a5)) <= (~- (a4))) then ((~- ((-662)))) else ((0)))) ((627)) (a6) ((-1))); a6)) in (4))

let f2 (a1 : int) (a2 : int) (t3 : bool) (t4 : bool) (a5 : int) (r : t) =
  (let v6 = (((~- (((((if (not ((a2) = (a5))) then (ignore (peek ((1)))) else (r.f6 <- (a5))); a5)) - (a5))))) + ((2))) in (let m7 = ref ((4)) in (800)))

let f3 () =
  (let b1 = (log ((if (not ((lamp_2 ((-86)) (0)) < (~- (valve ((-1)) ((-654)) (0) ((3)))))) then ((0)) else (0))) ((-918)) ((3)) >= (1)) in (0))
