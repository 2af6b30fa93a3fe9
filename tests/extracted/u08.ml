type t = { mutable f0 : int; mutable f1 : int; mutable f2 : int; mutable f3 : int; mutable f4 : int; mutable f5 : int; mutable f6 : int; mutable f7 : int; mutable f8 : int; mutable f9 : int; mutable f10 : int }
external read : int -> int = "READ"
external peek : int -> int = "PEEK"
external sound : int -> int -> int = "SOUND"
external lamp_2 : int -> int -> int = "LAMP_2"
external log : int -> int -> int -> int = "LOG"
external valve : int -> int -> int -> int -> int = "VALVE"
external pump : int -> int -> int -> int -> int -> int = "PUMP"

let f1 (a1 : int) (a2 : int) (r : t) (a3 : int) (t4 : bool) (a5 : int) (a6 : int) =
  (let b7 = (((r.f1) - (a3)) = ((a5) - (r.f3))) in (let v8 = (ignore (lamp_2 ((~- ((if t4 then ((r.f8 <- ((ignore (log (((if (((r.f7 + 2) > ((a5) - (a3))) && (((~- (a1)) >= (a5 + 2)) || ((b7 && ((a5) < (a6))) || ((~- (a3)) > (a6))))) then (r.f0 <- ((4)))); (4))) (a6) (a6)); a6)); a6)) else (a6))))) ((90))); (2)) in (-1)))

let f2 () =
  (let b3 = ((~- (sound (0) ((((ignore (peek (((if ((~- (log (0) ((~- (0))) (pump ((ignore (sound (peek ((let v1 = pump ((3)) (0) ((0)) (0) ((4)) in (if (((v1) - (v1)) = (v1)) then (v1) else (v1))))) ((if ((valve ((let b2 = (((peek ((~- ((2))))) - (sound ((((536)) - (0))) (((0) - (0))))) = (log ((((2)) - ((-1)))) ((((1)) + ((3)))) (0))) in 0)) (0) (0) ((485)) + 3) = (valve ((2)) (0) (0) (0))) then ((-182)) else ((3))))); (1))) (0) (0) (0) (0)))) > ((read (0)) - (log ((291)) ((4)) ((-1))))) then (ignore (log (0) ((4)) (0))) else (ignore (log ((-506)) (0) (0)))); (-43)))); (-669))) + 213)))) >= ((lamp_2 (0) ((-1))) - (log (0) ((-1)) (0)))) in (let m4 = ref ((1)) in 0))

let f3 (r : t) (a1 : int) (a2 : int) =
  (let v4 = valve (a2) ((1)) ((((let v3 = (ignore (valve ((~- (a2))) ((~- ((((353)) + ((if (not ((((a2) - (a2)) >= (r.f4)) && (((a1) - (a2)) = ((a1) - (a1))))) then (valve (a2) ((-1)) ((-1)) ((0))) else ((4)))))))) (a2) ((3))); a2) in (1))) + 200)) (a2) in (let m5 = ref (v4) in (let b6 = ((v4 + 6) < (v4)) in (3))))
