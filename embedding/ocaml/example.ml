(* cudf_check from OCaml: checks an answer and a malformed problem, both explained; counts and ranks;
   makes a CNF, and checks proofs that there is no solution, or no better one; goes through a report by pages. Prints
   embedding/expected.txt.

   In embedding/ocaml, or a copy of it, by dune, where header and library are installed, or by the compiler alone:

       dune exec ./example.exe
       ocamlopt -ccopt -I../../include cudf_check_stubs.c cudf_check.mli cudf_check.ml example.ml \
           ../../lib/libcudf_check.a -o example *)

(* car 1 is installed and needs a newer wheel than the one that is installed with it *)
let problem =
  {|package: car
version: 1
depends: wheel > 2
installed: true

package: wheel
version: 2
installed: true

package: wheel
version: 3

request: no upgrade
install: car
|}

let car = "package: car\nversion: 1\ninstalled: true\n"
let wheel_2 = "package: wheel\nversion: 2\ninstalled: true\n"
let wheel_3 = "package: wheel\nversion: 3\ninstalled: true\n"
let old_wheel = String.concat "\n" [ car; wheel_2 ]
let new_wheel = String.concat "\n" [ car; wheel_3 ]
let both_wheels = String.concat "\n" [ car; wheel_2; wheel_3 ]
let faulty = "package: car\nversion: one\n\nrequest:\n"

(* no wheel is new enough; and what a SAT solver may say of the CNF *)
let unsolvable =
  {|package: car
version: 1
depends: wheel > 2

package: wheel
version: 2

request:
install: car
|}

let proof = "3 0 2 1 0\n"
let packages = 10_000
let lines = 1_000

let number : Cudf_check.status -> int = function
  | Yes -> 0
  | No -> 1
  | Faulty -> 2
  | Fail -> 3
  | Usage -> 4
  | Unread -> 5
  | Memory -> 6

let print job ({ status; report } : Cudf_check.answer) =
  Printf.printf "\n%s: status %d\n%s" job (number status) report

let print_fault job ({ status; report } : Cudf_check.answer) =
  Scanf.sscanf report "%s line %d: %s %[^\n]" (fun whose line kind text ->
      Printf.printf "\n%s: status %d, %s on line %d of the %s: %s\n" job (number status) kind line whose text)

(* A problem of packages that are installed and need what isn't there. As its own answer it is no solution. *)
let broken count =
  let stanza at = Printf.sprintf "package: p%d\nversion: 1\ndepends: none\ninstalled: true\n\n" (at + 1) in
  String.concat "" (List.init count stanza) ^ "request:\n"

(* The key in a line `more after KEY`. *)
let more_after line =
  try Scanf.sscanf line "more after %s" Option.some with Scanf.Scan_failure _ | End_of_file -> None

let lines_of report = String.split_on_char '\n' report

(* The lines of each page of a listing, without the ends of all but the last of them. *)
let rec pages_of ?(after = []) text =
  let words = [ "check"; Printf.sprintf "--limit=%d" lines ] @ after in
  let page = lines_of (Cudf_check.run words [ text; text ]).report in
  match List.find_map more_after page with
  | None -> [ page ]
  | Some key -> List.filteri (fun at _ -> at < lines) page :: pages_of ~after:[ "--after=" ^ key ] text

let () =
  print_string (Cudf_check.run [ "--version" ] []).report;
  print "check" (Cudf_check.run [ "check"; "--explain" ] [ problem; old_wheel ]);
  print_fault "lint" (Cudf_check.run [ "lint"; "--explain" ] [ faulty ]);
  print "score" (Cudf_check.run [ "score" ] [ problem; new_wheel ]);
  print "rank"
    (Cudf_check.run [ "rank"; "--criteria=-changed,-touched" ] [ problem; old_wheel; both_wheels; new_wheel ]);
  print "cnf" (Cudf_check.run [ "cnf" ] [ unsolvable ]);
  print "refute" (Cudf_check.run [ "refute" ] [ unsolvable; proof ]);
  (* an answer that removes nothing can't be bettered: the proof isn't needed *)
  print "better"
    (Cudf_check.run [ "refute"; "--better-than=answer"; "--criteria=-removed" ] [ problem; ""; new_wheel ]);
  let many = broken packages in
  let pages = pages_of many in
  let is_same = List.concat pages = lines_of (Cudf_check.run [ "check" ] [ many; many ]).report in
  Printf.printf "\npages: %d of at most %d lines, which together %s the report of %d\n" (List.length pages) lines
    (if is_same then "are" else "aren't")
    packages
