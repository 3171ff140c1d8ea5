{ Prints the rows of the cartridge image in a file, a line for each, as cartlist does. }
program rows;

{$mode objfpc}

uses
  fingerkerf;

const
  MostBytes = 65536;

var
  image: array[0..MostBytes - 1] of Byte;
  length_: SizeUInt;

procedure Load(const name: string);
var
  source: file;
  got: LongInt;
begin
  Assign(source, name);
  Reset(source, 1);
  BlockRead(source, image, MostBytes, got);
  Close(source);
  length_ := got;
end;

procedure PrintRow(entry, cells: SizeUInt);
var
  levels: array[0..63] of Byte;
  row: TRowRecord;
  i: SizeUInt;
begin
  row := levels_read_row(@image, length_, entry, @levels, cells);
  if row.refusal <> 0 then
  begin
    WriteLn('row ', row.entry, ' refused ', row.refusal);
    Exit;
  end;
  Write('row ', row.entry, ' count ', row.count, ' levels');
  for i := 1 to cells do
    Write(' ', levels[i - 1]);
  WriteLn;
end;

var
  number: SizeUInt;
  cells: TSize;
  entry: SizeUInt;
begin
  Load(ParamStr(1));
  number := levels_check_image(@image, length_);
  if number <> 0 then
  begin
    WriteLn('image refused ', number);
    Halt(0);
  end;
  for entry := 1 to image[0] do
  begin
    cells := levels_row_cells(@image, length_, entry);
    if cells.number = 0 then
      PrintRow(entry, cells.size);
  end;
end.
