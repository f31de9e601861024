(* The constructors stand in the order of their numbers: the stub makes them of these. *)
type status = Yes | No | Faulty | Fail | Usage | Unread | Memory
type answer = { status : status; report : string }

(* Writes the front of the report into the bytes, and returns the length of the whole one. *)
external run_into : string array -> string array -> string array -> bytes -> status * int = "cudf_check_ocaml_run"

(* Makes a call with a buffer for its report, and again with a larger one if that was too small. *)
let run ?(names = []) words documents =
  let words, documents, names = Array.(of_list words, of_list documents, of_list names) in
  let rec answer room =
    let buffer = Bytes.create room in
    let status, length = run_into words documents names buffer in
    if length > room then answer length else { status; report = Bytes.sub_string buffer 0 length }
  in
  answer 65536
