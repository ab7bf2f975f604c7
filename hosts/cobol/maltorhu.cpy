      ******************************************************************
      * maltorhu.cpy - what a COBOL program needs to call libmaltorhu.a.
      *
      * COPY "maltorhu.cpy" stands in WORKING-STORAGE. Compile with
      *     cobc -x -static -I hosts/cobol program.cob libmaltorhu.a
      * (without -static the calls are looked for at run time, in vain).
      *
      * A word of the engine is PIC 9(4) COMP-5. COMP-5 is the machine's
      * own order of bytes; plain COMP is not and comes out swapped.
      * Characters go into words by dbpack and come out by dbunpack:
      * a PIC X item laid over words would be swapped, too.
      *
      * A table goes over in two parameters: BY REFERENCE the table, BY
      * VALUE its number of elements, which must be an item of 8 bytes,
      * PIC 9(18) COMP-5. A literal would go over with 4.
      *
      * The parameters of each call, in this order:
      *
      *     ROOT    BY REFERENCE root words      BY VALUE their number
      *     AREA    BY REFERENCE area words      BY VALUE their number
      *     CURSORS BY REFERENCE MALTORHU-CURSORS
      *                                     BY VALUE CURSORS-LENGTH
      *     STATUS  BY REFERENCE MALTORHU-STATUS
      *                                     BY VALUE STATUS-LENGTH
      *     PASSED  BY REFERENCE MALTORHU-PASSED
      *                                     BY VALUE PASSED-LENGTH
      *     SET, ITEM, MODE   BY VALUE an item PIC 9(4) COMP-5
      *     RECORD            BY VALUE an item PIC 9(9) COMP-5
      *     VALUE, BUFFER, ENTRY
      *             BY REFERENCE words           BY VALUE their number
      *     TEXT    BY REFERENCE a PIC X item    BY VALUE its length
      *
      *     "dbmake"   ROOT AREA STATUS
      *     "dbfind"   ROOT AREA CURSORS SET ITEM VALUE STATUS
      *     "dbget"    ROOT AREA CURSORS SET MODE RECORD VALUE BUFFER
      *                STATUS
      *     "dbput"    ROOT AREA CURSORS SET ENTRY STATUS PASSED
      *     "dbupdate" ROOT AREA CURSORS SET ENTRY STATUS
      *     "dbdelete" ROOT AREA CURSORS SET STATUS
      *     "dbpack"   TEXT, words, their number
      *     "dbunpack" words, their number, TEXT
      *
      * Each is called RETURNING CALL-CODE. If it is not 0, a table had
      * the wrong length and nothing was written, not even the status.
      * If it is 0, CONDITION-WORD tells how the call went.
      ******************************************************************

      * Lengths, to be passed BY VALUE.
       01  MALTORHU-LENGTHS.
           05  CURSORS-LENGTH          PIC 9(18) COMP-5 VALUE 64.
           05  STATUS-LENGTH           PIC 9(18) COMP-5 VALUE 10.
           05  PASSED-LENGTH           PIC 9(18) COMP-5 VALUE 4.

      * What a call returns.
       01  CALL-CODE                   PIC 9(4) COMP-5 VALUE 0.
           88  CALL-WORKED             VALUE 0.

      * How a call that was worked went. The condition word is signed.
      * A two-word number is its HIGH times 65536 plus its LOW.
       01  MALTORHU-STATUS.
           05  CONDITION-WORD          PIC S9(4) COMP-5.
               88  CALL-DONE           VALUE 0.
      *        The call was wrong in itself: mend the program.
               88  BAD-ROOT            VALUE -91.
               88  BAD-AREA            VALUE -92.
               88  NO-SET              VALUE -21.
               88  BAD-CURSOR          VALUE -93.
               88  IS-AUTOMATIC        VALUE -24.
               88  BAD-MODE            VALUE -31.
               88  NO-SEARCH-ITEM      VALUE -52.
               88  BAD-LENGTH          VALUE -95.
               88  NO-PATH             VALUE -94.
               88  SHORT-BUFFER        VALUE 50.
      *        There is nothing to read there.
               88  SET-ENDED           VALUE 10 11.
               88  BEGIN-OF-SET        VALUE 10.
               88  END-OF-SET          VALUE 11.
               88  RECORD-ZERO         VALUE 12.
               88  RECORD-ABOVE        VALUE 13.
               88  CHAIN-ENDED         VALUE 14 15.
               88  BEGIN-OF-CHAIN      VALUE 14.
               88  END-OF-CHAIN        VALUE 15.
               88  NO-RECORD           VALUE 17.
      *        The base does not allow it.
               88  SET-FULL            VALUE 16.
               88  FIXED-ITEM          VALUE 41.
               88  KEY-PRESENT         VALUE 43.
               88  HAS-LINES           VALUE 44.
               88  NO-MASTER           VALUE 101 THRU 104.
               88  NO-MASTER-1         VALUE 101.
               88  NO-MASTER-2         VALUE 102.
               88  NO-MASTER-3         VALUE 103.
               88  NO-MASTER-4         VALUE 104.
               88  MASTER-FULL         VALUE 301 THRU 304.
               88  MASTER-FULL-1       VALUE 301.
               88  MASTER-FULL-2       VALUE 302.
               88  MASTER-FULL-3       VALUE 303.
               88  MASTER-FULL-4       VALUE 304.
      *        The area was damaged from outside, or the cursors are
      *        from before a delete that was made with others.
               88  DAMAGED             VALUE 18.
           05  STATUS-ENTRY-LENGTH     PIC 9(4) COMP-5.
      *    Get, put: the record.
           05  STATUS-RECORD-HIGH      PIC 9(4) COMP-5.
           05  STATUS-RECORD-LOW       PIC 9(4) COMP-5.
      *    Find: lines in the chain; a master's get, put: synonyms.
           05  STATUS-COUNT-HIGH       PIC 9(4) COMP-5.
           05  STATUS-COUNT-LOW        PIC 9(4) COMP-5.
      *    Find: last line; get, put: the line behind.
           05  STATUS-BACK-HIGH        PIC 9(4) COMP-5.
           05  STATUS-BACK-LOW         PIC 9(4) COMP-5.
      *    Find: first line; get, put: the line ahead.
           05  STATUS-FORWARD-HIGH     PIC 9(4) COMP-5.
           05  STATUS-FORWARD-LOW      PIC 9(4) COMP-5.

      * Where the program stands in each set. Fresh: all 0 (INITIALIZE).
       01  MALTORHU-CURSORS.
           05  MALTORHU-CURSOR         OCCURS 16 TIMES.
               10  CURSOR-RECORD       PIC 9(9) COMP-5 VALUE 0.
               10  CURSOR-PATH         PIC 9(9) COMP-5 VALUE 0.
               10  CURSOR-BACK         PIC 9(9) COMP-5 VALUE 0.
               10  CURSOR-FORWARD      PIC 9(9) COMP-5 VALUE 0.

      * Put: the lines passed on each of four paths.
       01  MALTORHU-PASSED.
           05  LINES-PASSED            PIC 9(4) COMP-5 OCCURS 4 TIMES.

      * Types of an item, kinds of a set, modes of a get.
       78  TYPE-I                      VALUE 1.
       78  TYPE-K                      VALUE 2.
       78  TYPE-X                      VALUE 3.
       78  KIND-MANUAL                 VALUE 1.
       78  KIND-AUTOMATIC              VALUE 2.
       78  KIND-DETAIL                 VALUE 3.
       78  GET-CURRENT                 VALUE 1.
       78  GET-NEXT                    VALUE 2.
       78  GET-PREVIOUS                VALUE 3.
       78  GET-RECORD                  VALUE 4.
       78  GET-FORWARD                 VALUE 5.
       78  GET-BACK                    VALUE 6.
       78  GET-KEY                     VALUE 7.
