TAPE 1 0000000000 0000
NEW 0a
TITLE \06MAIN INDEX
ROW 3 \13 <,$4 4<,$4 4(< 4 48,0   4 4<,$4 48,0
ROW 4 \13 =, ih!=, 7d5 5 7d55`0   7d5=, 545),0
ROW 5 \13 -,$ % -,$% %(- % %),%   % %-,$))!),!
ROW 7 \0d\13x\7f\7ft\16p|\7fp|tp\7fp~|txtz\7fu|p~tx\12p|\7f\7f|px|t
ROW 10 \03\0dTHE PAPER ON YOUR TELEVISION
ROW 13 \06 1\07 News of the hour\03              2p
ROW 14 \06 2\07 Book a seat on the train
ROW 15 \06 3\07 Write a letter
ROW 17 \01\08TONIGHT\09\07 all trains run, page 20
ROW 19 \02What has keys and opens no door?
ROW 20 \05\18A terminal.
ROW 22 \1a\11,,,,,\13,,,,,\12,,,,,\16,,,,,\14,,,,,\15,,,,,\17,,
ROW 23 \04\1d\07Key a digit, or *20_ for page 20
ROUTE 1 20
ROUTE 2 30
ROUTE 3 8
STORE
NEW 20a
TITLE \06NEWS OF THE HOUR
ROW 3 \03\0dALL TRAINS RUN TODAY
ROW 6 The railway says that every train of the
ROW 7 evening runs, and that each is on time.
ROW 9 A seat costs #1\5c, and a child pays #\7b.
ROW 11 \06Wind\07] north, and warm ^
ROW 13 \02Trains of the evening on the next frame
ROW 23 \04\1d\07Key _ for the next, *_ to go back
PRICE 2
STORE
NEW 20b
TITLE \06TRAINS
ROW 3 \03\0dTRAINS OF THE EVENING
ROW 6 \0618.05\07Harbour
ROW 7 \0618.40\07Castle and the hills
ROW 8 \0619.15\07Harbour\01\08last one\09
ROW 10 \1a\16  ||   |l<|l<4|l<|l<4
ROW 11 \1a\16 o?/\7f/ /\7f//o?%/\7f//o?%
ROW 23 \04\1d\07*_ to go back, *0_ for the main index
STORE
NEW 30a
TITLE \06A SEAT ON THE TRAIN
KIND R
ROW 3 \03\0dBOOK A SEAT
ROW 6 \06Name    \07....................
ROW 8 \06Seats   \07..
ROW 12 \02End each of them with _
FIELD 6 10 20 T
FIELD 8 10 2 D
STORE
NEW 8a
TITLE \06LETTERS
KIND M
ROW 3 \06To  \07..........
ROW 5 \06Text
ROW 6 ........................................
ROW 7 ........................................
ROW 10 \02End each of them with _
FIELD 3 6 10 D
FIELD 6 0 40 T
FIELD 7 0 40 T
STORE
