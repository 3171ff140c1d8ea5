{ Fingerkerf for Free Pascal: the boundary's types and functions. What each number means is in bindings/c/fingerkerf.h.
  Compile with -Fl and the folder of libfingerkerf.a. }
unit fingerkerf;

{$mode objfpc}
{$packrecords c}
{$linklib fingerkerf}
{$linklib c}

interface

type
  { A row given back: number 0, count, tried, plane 0; a refusal: its number, and the plane with a stack's 11. tried is the place,
    counted from 1, of the given pattern in document 01's order; 0 for a stack, and where a table was read. }
  TReading = record
    number, count, tried, plane: SizeUInt;
  end;

  { A plain refusal: number. A record: number 0, entry, and a count or a refusal. }
  TRowRecord = record
    number, entry, refusal, count, plane: SizeUInt;
  end;

  { number 0 and the size, or the refusal's number. }
  TSize = record
    number, size: SizeUInt;
  end;

  { number 0 and the value, or the refusal's number. }
  TValue = record
    number: SizeUInt;
    value: QWord;
  end;

function levels_test(body: PByte; bodyLen: SizeUInt): SizeUInt; cdecl; external;
function levels_encode(body: PByte; bodyLen: SizeUInt; message: PByte; messageLen: SizeUInt;
  outp: PByte; outLen: SizeUInt): SizeUInt; cdecl; external;
function levels_decode(body: PByte; bodyLen: SizeUInt; word_: PByte; wordLen: SizeUInt;
  outp: PByte; outLen: SizeUInt): TReading; cdecl; external;
function levels_recover(body: PByte; bodyLen: SizeUInt; word_: PByte; wordLen: SizeUInt;
  outp: PByte; outLen: SizeUInt): SizeUInt; cdecl; external;

{ A word of the binary Golay code of 23 cells, by a table: q is even, 2 to 64. It reads as levels_decode with that code's description,
  but for tried, which is 0. }
function levels_decode_golay(q: SizeUInt; word_: PByte; wordLen: SizeUInt;
  outp: PByte; outLen: SizeUInt): TReading; cdecl; external;

function levels_test_stack(body: PByte; bodyLen: SizeUInt): SizeUInt; cdecl; external;
function levels_encode_stack(body: PByte; bodyLen: SizeUInt; message: PByte; messageLen: SizeUInt;
  outp: PByte; outLen: SizeUInt): SizeUInt; cdecl; external;
function levels_decode_stack(body: PByte; bodyLen: SizeUInt; word_: PByte; wordLen: SizeUInt;
  outp: PByte; outLen: SizeUInt): TReading; cdecl; external;
function levels_recover_stack(body: PByte; bodyLen: SizeUInt; word_: PByte; wordLen: SizeUInt;
  outp: PByte; outLen: SizeUInt): SizeUInt; cdecl; external;

function levels_make_labels(kind: SizeUInt; table: PByte; tableLen: SizeUInt): SizeUInt; cdecl; external;
function levels_to_levels(table: PByte; tableLen: SizeUInt; states: PByte; statesLen: SizeUInt;
  levels: PByte; levelsLen: SizeUInt): SizeUInt; cdecl; external;
function levels_to_states(table: PByte; tableLen: SizeUInt; levels: PByte; levelsLen: SizeUInt;
  states: PByte; statesLen: SizeUInt): SizeUInt; cdecl; external;

{ Unpacking refuses 19 when a bit of the last byte past the last symbol is set; packing leaves these bits 0. }
function levels_pack(body: PByte; bodyLen: SizeUInt; message: PByte; messageLen: SizeUInt;
  bytes: PByte; bytesLen: SizeUInt): SizeUInt; cdecl; external;
function levels_unpack(body: PByte; bodyLen: SizeUInt; bytes: PByte; bytesLen: SizeUInt;
  message: PByte; messageLen: SizeUInt): SizeUInt; cdecl; external;

function levels_message_of_number(body: PByte; bodyLen: SizeUInt; value: QWord;
  message: PByte; messageLen: SizeUInt): SizeUInt; cdecl; external;
function levels_number_of_message(body: PByte; bodyLen: SizeUInt; message: PByte; messageLen: SizeUInt): TValue; cdecl; external;

function levels_check_image(image: PByte; imageLen: SizeUInt): SizeUInt; cdecl; external;
function levels_read_row(image: PByte; imageLen: SizeUInt; entry: SizeUInt;
  outp: PByte; outLen: SizeUInt): TRowRecord; cdecl; external;

function levels_code_cells(body: PByte; bodyLen: SizeUInt): TSize; cdecl; external;
function levels_stack_cells(body: PByte; bodyLen: SizeUInt): TSize; cdecl; external;
function levels_stack_symbols(body: PByte; bodyLen: SizeUInt): TSize; cdecl; external;
function levels_packed_bytes(body: PByte; bodyLen: SizeUInt): TSize; cdecl; external;
function levels_row_cells(image: PByte; imageLen: SizeUInt; entry: SizeUInt): TSize; cdecl; external;

implementation

end.
