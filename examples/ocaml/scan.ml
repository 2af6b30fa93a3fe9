(* A scan of a table of eight clients, once per frame pulse: each place holds the frame in which its client was last heard. A client that
   has been silent for longer than allowed is dropped, and its place holds what DROP answers; the others are counted. There is no loop:
   the eight turns are written out. *)
type table = {
  mutable c0 : int;
  mutable c1 : int;
  mutable c2 : int;
  mutable c3 : int;
  mutable c4 : int;
  mutable c5 : int;
  mutable c6 : int;
  mutable c7 : int;
}

external drop : int -> int = "DROP"
external tell : int -> int = "TELL"

let scan table now silent =
  let heard = ref 0 in
  if now - table.c0 > silent then table.c0 <- drop 0 else heard := !heard + 1;
  if now - table.c1 > silent then table.c1 <- drop 1 else heard := !heard + 1;
  if now - table.c2 > silent then table.c2 <- drop 2 else heard := !heard + 1;
  if now - table.c3 > silent then table.c3 <- drop 3 else heard := !heard + 1;
  if now - table.c4 > silent then table.c4 <- drop 4 else heard := !heard + 1;
  if now - table.c5 > silent then table.c5 <- drop 5 else heard := !heard + 1;
  if now - table.c6 > silent then table.c6 <- drop 6 else heard := !heard + 1;
  if now - table.c7 > silent then table.c7 <- drop 7 else heard := !heard + 1;
  tell !heard
