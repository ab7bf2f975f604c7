      ******************************************************************
      * prices.cob - the worked example: a wholesaler's prices, put,
      * billed, mended.
      *
      * ACCOUNTS (manual) hold the customers. PRICES (detail) holds one
      * line for each price agreed with an account, chained to the
      * account in the order of its dates. ARTICLES (automatic) comes
      * and goes with the lines.
      *
      * Billing reads an account's chain backward: the first line met
      * with the article is the price billed. If two prices were agreed
      * on one day, the one put second must stand last. An engine that
      * let a new line also pass the lines that sort equal would bill
      * the older price.
      *
      * cobc -x -static -I hosts/cobol hosts/cobol/prices.cob \
      *      libmaltorhu.a
      ******************************************************************
       IDENTIFICATION DIVISION.
       PROGRAM-ID. PRICES.

       DATA DIVISION.
       WORKING-STORAGE SECTION.
       COPY "maltorhu.cpy".

      * The numbers of the items and of the sets.
       78  ACCOUNT-ITEM                VALUE 1.
       78  NAME-ITEM                   VALUE 2.
       78  ARTICLE-ITEM                VALUE 3.
       78  PRICE-ITEM                  VALUE 4.
       78  DATE-ITEM                   VALUE 5.
       78  ACCOUNTS-SET                VALUE 1.
       78  ARTICLES-SET                VALUE 2.
       78  PRICES-SET                  VALUE 3.

      * Lengths in words. The root has 2 counts, 5 items of 2 words and
      * 3 sets of 33. The area has two words, map and records of each
      * set:
      *   ACCOUNTS  2 + 1 + 11 * (5 + 5 + 11) = 234
      *   ARTICLES  2 + 1 + 11 * (5 + 5 + 4)  = 157
      *   PRICES    2 + 2 + 20 * (4 + 4 + 9)  = 344
       78  ROOT-SIZE                   VALUE 111.
       78  AREA-SIZE                   VALUE 735.
       78  NAME-SIZE                   VALUE 10.
       78  ARTICLE-SIZE                VALUE 4.
       78  NUMBER-SIZE                 VALUE 2.

      * DESCRIBE-BASE fills the root; unused places stay 0.
       01  ROOT-WORDS.
           05  ROOT-ITEM-COUNT         PIC 9(4) COMP-5.
           05  ROOT-SET-COUNT          PIC 9(4) COMP-5.
           05  ROOT-ITEM               OCCURS 5 TIMES.
               10  ITEM-TYPE           PIC 9(4) COMP-5.
               10  ITEM-LENGTH         PIC 9(4) COMP-5.
           05  ROOT-SET                OCCURS 3 TIMES.
               10  SET-KIND            PIC 9(4) COMP-5.
               10  SET-CAPACITY        PIC 9(4) COMP-5.
               10  SET-ITEM-COUNT      PIC 9(4) COMP-5.
               10  SET-KEY             PIC 9(4) COMP-5.
               10  SET-PATH-COUNT      PIC 9(4) COMP-5.
               10  SET-ITEM            PIC 9(4) COMP-5
                                       OCCURS 16 TIMES.
               10  SET-PATH            OCCURS 4 TIMES.
                   15  PATH-MASTER     PIC 9(4) COMP-5.
                   15  PATH-SEARCH     PIC 9(4) COMP-5.
                   15  PATH-SORT       PIC 9(4) COMP-5.

       01  AREA-WORDS.
           05  FILLER                  PIC 9(4) COMP-5
                                       OCCURS AREA-SIZE TIMES.

      * The same lengths and those of texts, to be passed BY VALUE.
       01  LENGTHS.
           05  ROOT-LENGTH             PIC 9(18) COMP-5 VALUE ROOT-SIZE.
           05  AREA-LENGTH             PIC 9(18) COMP-5 VALUE AREA-SIZE.
           05  ACCOUNT-LENGTH          PIC 9(18) COMP-5 VALUE 1.
           05  NAME-LENGTH             PIC 9(18) COMP-5 VALUE NAME-SIZE.
           05  ARTICLE-LENGTH          PIC 9(18) COMP-5
                                       VALUE ARTICLE-SIZE.
           05  ACCOUNT-ENTRY-LENGTH    PIC 9(18) COMP-5 VALUE 11.
           05  LINE-ENTRY-LENGTH       PIC 9(18) COMP-5 VALUE 9.
           05  NAME-TEXT-LENGTH        PIC 9(18) COMP-5 VALUE 20.
           05  ARTICLE-TEXT-LENGTH     PIC 9(18) COMP-5 VALUE 8.

      * The parameters of the calls.
       01  CALL-PARAMETERS.
           05  SET-NO                  PIC 9(4) COMP-5.
           05  ITEM-NO                 PIC 9(4) COMP-5.
           05  GET-MODE                PIC 9(4) COMP-5.
           05  RECORD-NO               PIC 9(9) COMP-5 VALUE 0.
           05  VALUE-LENGTH            PIC 9(18) COMP-5.
           05  ENTRY-LENGTH            PIC 9(18) COMP-5.

       01  VALUE-WORDS.
           05  VALUE-WORD              PIC 9(4) COMP-5 OCCURS 4 TIMES.

       01  ENTRY-WORDS.
           05  ENTRY-WORD              PIC 9(4) COMP-5
                                       OCCURS 11 TIMES.
       01  ACCOUNT-ENTRY REDEFINES ENTRY-WORDS.
           05  AE-ACCOUNT              PIC 9(4) COMP-5.
           05  AE-NAME                 PIC 9(4) COMP-5 OCCURS 10 TIMES.
      * DATE is the last item, so nothing behind it can order the chain.
       01  LINE-ENTRY REDEFINES ENTRY-WORDS.
           05  LE-ACCOUNT              PIC 9(4) COMP-5.
           05  LE-ARTICLE              PIC 9(4) COMP-5 OCCURS 4 TIMES.
           05  LE-PRICE-HIGH           PIC 9(4) COMP-5.
           05  LE-PRICE-LOW            PIC 9(4) COMP-5.
           05  LE-DATE-HIGH            PIC 9(4) COMP-5.
           05  LE-DATE-LOW             PIC 9(4) COMP-5.

      * The same in the program's own shape. An account number has four
      * digits in this house.
       01  THE-ACCOUNT.
           05  ACCOUNT-NO              PIC 9(4).
           05  ACCOUNT-NAME            PIC X(20).
       01  THE-LINE.
           05  LINE-ACCOUNT            PIC 9(4).
           05  LINE-ARTICLE            PIC X(8).
           05  LINE-DATE               PIC 9(8).
           05  LINE-PRICE              PIC 9(4)V99.
       01  LINE-RECORD                 PIC 9(4) COMP-5.

      * The line billed, while the line behind it is read.
       01  BILLED-LINE.
           05  BILLED-DATE             PIC 9(8).
           05  BILLED-RECORD           PIC 9(4) COMP-5.

       01  RECORD-TAKEN                PIC 9(4) COMP-5.
       01  CENTS                       PIC 9(9) COMP-5.

       01  ACCOUNTS-IN.
           05  FILLER PIC X(24) VALUE "1001BAKER AND SONS".
           05  FILLER PIC X(24) VALUE "1012CORNER SHOP".
           05  FILLER PIC X(24) VALUE "1002DAILY BREAD".
       01  ACCOUNT-TABLE REDEFINES ACCOUNTS-IN.
           05  ACCOUNT-IN              PIC X(24) OCCURS 3 TIMES.

      * Account, article, date, price.
       01  PRICES-IN.
           05  FILLER PIC X(26) VALUE "1001FLOUR-2520250311001840".
           05  FILLER PIC X(26) VALUE "1001FLOUR-2520250304001795".
           05  FILLER PIC X(26) VALUE "1001SUGAR-5020250307003120".
           05  FILLER PIC X(26) VALUE "1002FLOUR-2520250305001875".
           05  FILLER PIC X(26) VALUE "1001FLOUR-2520250311001810".
           05  FILLER PIC X(26) VALUE "1002SALT-10 20250301000460".
           05  FILLER PIC X(26) VALUE "1009FLOUR-2520250311001825".
       01  PRICE-TABLE REDEFINES PRICES-IN.
           05  PRICE-IN                PIC X(26) OCCURS 7 TIMES.
       01  TABLE-PLACE                 PIC 9(4) COMP-5.

      * What a paragraph is asked for.
       01  REQUEST.
           05  WANTED-ACCOUNT          PIC 9(4).
           05  WANTED-ARTICLE          PIC X(8).
           05  WANTED-QUANTITY         PIC 9(4).

       01  AMOUNT                      PIC 9(6)V99.
       01  TOTAL-AMOUNT                PIC 9(6)V99.

      * What is printed.
       78  NEW-LINE                    VALUE X"0A".
       01  PRINT-FIELDS.
           05  SHOWN-NUMBER            PIC ZZZ9.
           05  SHOWN-COUNT             PIC Z(8)9.
           05  SHOWN-CONDITION         PIC -(5)9.
           05  SHOWN-PRICE             PIC ZZZ9.99.
           05  SHOWN-AMOUNT            PIC Z(5)9.99.
           05  REMARK                  PIC X(48) VALUE SPACES.
           05  WHAT                    PIC X(48).

       PROCEDURE DIVISION.
       THE-DAY.
           PERFORM OPEN-BASE
           PERFORM OPEN-ACCOUNTS
           PERFORM PUT-PRICES
           MOVE 1001 TO WANTED-ACCOUNT
           MOVE "FLOUR-25" TO WANTED-ARTICLE
           PERFORM SHOW-CHAINS
           PERFORM INVOICE
           PERFORM CORRECT-PRICE
           PERFORM WITHDRAW-PRICE
           MOVE 1002 TO WANTED-ACCOUNT
           PERFORM CLOSE-ACCOUNT
           MOVE "SALT-10" TO WANTED-ARTICLE
           PERFORM SHOW-ARTICLE-GONE
           PERFORM SHOW-ACCOUNTS
           STOP RUN.

      ******************************************************************
      * The wholesaler's day
      ******************************************************************
       OPEN-BASE.
           PERFORM DESCRIBE-BASE
           INITIALIZE MALTORHU-CURSORS
           PERFORM CALL-MAKE
           MOVE "making the base" TO WHAT
           PERFORM MUST
           DISPLAY "PRICES: root " ROOT-SIZE " words, area "
               AREA-SIZE " words".

       OPEN-ACCOUNTS.
           DISPLAY NEW-LINE "Accounts opened"
           PERFORM VARYING TABLE-PLACE FROM 1 BY 1
                   UNTIL TABLE-PLACE > 3
               MOVE ACCOUNT-IN(TABLE-PLACE) TO THE-ACCOUNT
               PERFORM PUT-ACCOUNT
               MOVE "opening an account" TO WHAT
               PERFORM MUST
               PERFORM SHOW-ACCOUNT
           END-PERFORM.

       PUT-PRICES.
           DISPLAY NEW-LINE
               "Prices put, in the order in which they came"
           PERFORM VARYING TABLE-PLACE FROM 1 BY 1
                   UNTIL TABLE-PLACE > 7
               MOVE PRICE-IN(TABLE-PLACE) TO THE-LINE
               PERFORM PUT-AND-SHOW-LINE
           END-PERFORM.

      * A price for an account that is not there is told and set aside.
       PUT-AND-SHOW-LINE.
           PERFORM PUT-LINE
           IF NO-MASTER-1
               STRING "  refused, 101: no account " LINE-ACCOUNT
                   DELIMITED BY SIZE INTO REMARK
           ELSE
               MOVE "putting a price" TO WHAT
               PERFORM MUST
               MOVE LINES-PASSED(1) TO SHOWN-COUNT
               STRING ", passed " FUNCTION TRIM(SHOWN-COUNT)
                   DELIMITED BY SIZE INTO REMARK
           END-IF
           PERFORM SHOW-LINE.

       SHOW-CHAINS.
           MOVE GET-FORWARD TO GET-MODE
           PERFORM SHOW-ACCOUNT-CHAIN
           MOVE GET-BACK TO GET-MODE
           PERFORM SHOW-ACCOUNT-CHAIN
           MOVE GET-FORWARD TO GET-MODE
           PERFORM SHOW-ARTICLE-CHAIN.

       SHOW-ACCOUNT-CHAIN.
           PERFORM FIND-ACCOUNT
           MOVE "finding an account's chain" TO WHAT
           PERFORM MUST
           DISPLAY NEW-LINE "Account " WANTED-ACCOUNT
               WITH NO ADVANCING
           PERFORM SHOW-CHAIN.

       SHOW-ARTICLE-CHAIN.
           PERFORM FIND-ARTICLE
           MOVE "finding an article's chain" TO WHAT
           PERFORM MUST
           DISPLAY NEW-LINE "Article " FUNCTION TRIM(WANTED-ARTICLE)
               WITH NO ADVANCING
           PERFORM SHOW-CHAIN.

       SHOW-CHAIN.
           PERFORM SHOW-CHAIN-COUNT
           IF GET-MODE = GET-FORWARD
               DISPLAY "forward"
           ELSE
               DISPLAY "backward"
           END-IF
           PERFORM NEXT-LINE
           PERFORM UNTIL CHAIN-ENDED
               PERFORM SHOW-LINE
               PERFORM NEXT-LINE
           END-PERFORM.

       SHOW-CHAIN-COUNT.
           PERFORM TAKE-COUNT
           DISPLAY ", chain of " FUNCTION TRIM(SHOWN-COUNT) " lines, "
               WITH NO ADVANCING.

       INVOICE.
           MOVE GET-KEY TO GET-MODE
           PERFORM GET-ACCOUNT
           MOVE "reading the account" TO WHAT
           PERFORM MUST
           DISPLAY NEW-LINE "Invoice for account " ACCOUNT-NO ", "
               FUNCTION TRIM(ACCOUNT-NAME)
           MOVE 0 TO TOTAL-AMOUNT
           MOVE "FLOUR-25" TO WANTED-ARTICLE
           MOVE 40 TO WANTED-QUANTITY
           PERFORM BILL
           MOVE "SUGAR-50" TO WANTED-ARTICLE
           MOVE 12 TO WANTED-QUANTITY
           PERFORM BILL
           MOVE TOTAL-AMOUNT TO SHOWN-AMOUNT
           DISPLAY "  total                      " SHOWN-AMOUNT
           MOVE "FLOUR-25" TO WANTED-ARTICLE
           PERFORM SHOW-SECOND-PRICE-BILLED.

       BILL.
           PERFORM FIND-PRICE
           MULTIPLY WANTED-QUANTITY BY LINE-PRICE GIVING AMOUNT
               ON SIZE ERROR PERFORM TOO-LARGE
           END-MULTIPLY
           ADD AMOUNT TO TOTAL-AMOUNT
               ON SIZE ERROR PERFORM TOO-LARGE
           END-ADD
           MOVE WANTED-QUANTITY TO SHOWN-NUMBER
           MOVE LINE-PRICE TO SHOWN-PRICE
           MOVE AMOUNT TO SHOWN-AMOUNT
           DISPLAY "  " WANTED-ARTICLE "  " SHOWN-NUMBER " at "
               SHOWN-PRICE "  " SHOWN-AMOUNT.

      * The price billed: the last line of the account's chain with the
      * article.
       FIND-PRICE.
           PERFORM FIND-ACCOUNT
           MOVE "finding the account to bill" TO WHAT
           PERFORM MUST
           MOVE GET-BACK TO GET-MODE
           PERFORM NEXT-LINE
           PERFORM UNTIL CHAIN-ENDED OR LINE-ARTICLE = WANTED-ARTICLE
               PERFORM NEXT-LINE
           END-PERFORM
           MOVE "no price for the article" TO WHAT
           PERFORM MUST.

      * Nothing was deleted yet, so of two records the one with the
      * higher number was put later.
       SHOW-SECOND-PRICE-BILLED.
           PERFORM FIND-PRICE
           MOVE LINE-DATE TO BILLED-DATE
           MOVE LINE-RECORD TO BILLED-RECORD
           PERFORM GET-LINE-BEHIND
           IF LINE-DATE NOT = BILLED-DATE
                   OR LINE-RECORD > BILLED-RECORD
               MOVE "the older of two prices of a day is billed" TO WHAT
               PERFORM STOP-HERE
           END-IF
           PERFORM FIND-PRICE
           MOVE ", put second that day: billed" TO REMARK
           PERFORM SHOW-LINE
           PERFORM GET-LINE-BEHIND
           MOVE ", put first that day" TO REMARK
           PERFORM SHOW-LINE.

       CORRECT-PRICE.
           DISPLAY NEW-LINE "Corrections"
           MOVE "SUGAR-50" TO WANTED-ARTICLE
           PERFORM FIND-PRICE
           MOVE 30.90 TO LINE-PRICE
           PERFORM UPDATE-LINE
           MOVE "correcting a price" TO WHAT
           PERFORM MUST
           MOVE GET-CURRENT TO GET-MODE
           PERFORM GET-LINE
           MOVE "reading the line again" TO WHAT
           PERFORM MUST
           MOVE ", updated" TO REMARK
           PERFORM SHOW-LINE
           MOVE 20250308 TO LINE-DATE
           PERFORM UPDATE-LINE
           IF NOT FIXED-ITEM
               MOVE "changing a date" TO WHAT
               PERFORM UNEXPECTED
           END-IF
           MOVE ", refused, 41: delete it and put it again" TO REMARK
           PERFORM SHOW-LINE.

      * After a delete the cursor still knows the lines on both sides.
       WITHDRAW-PRICE.
           DISPLAY NEW-LINE "A price withdrawn"
           MOVE "FLOUR-25" TO WANTED-ARTICLE
           PERFORM FIND-PRICE
           PERFORM GET-LINE-BEHIND
           PERFORM DELETE-AND-SHOW-LINE
           MOVE GET-FORWARD TO GET-MODE
           MOVE ", read on forward" TO REMARK
           PERFORM READ-ON
           MOVE GET-BACK TO GET-MODE
           MOVE ", read on backward" TO REMARK
           PERFORM READ-ON
           MOVE "1001SUGAR-5020250310003050" TO THE-LINE
           PERFORM PUT-AND-SHOW-LINE.

       READ-ON.
           PERFORM GET-LINE
           MOVE "reading on" TO WHAT
           PERFORM MUST
           PERFORM SHOW-LINE.

       DELETE-AND-SHOW-LINE.
           MOVE PRICES-SET TO SET-NO
           PERFORM CALL-DELETE
           MOVE "deleting a line" TO WHAT
           PERFORM MUST
           MOVE ", deleted" TO REMARK
           PERFORM SHOW-LINE.

      * An account with lines is refused; its lines go first.
       CLOSE-ACCOUNT.
           MOVE GET-KEY TO GET-MODE
           PERFORM GET-ACCOUNT
           MOVE "reading the account" TO WHAT
           PERFORM MUST
           DISPLAY NEW-LINE "Account " ACCOUNT-NO " closes"
           PERFORM DELETE-ACCOUNT
           IF HAS-LINES
               DISPLAY "  refused, 44: it still has lines"
               PERFORM DELETE-LINES
               PERFORM DELETE-ACCOUNT
           END-IF
           MOVE "deleting the account" TO WHAT
           PERFORM MUST
           DISPLAY "  account " ACCOUNT-NO " deleted".

       DELETE-LINES.
           PERFORM FIND-ACCOUNT
           MOVE "finding the lines to delete" TO WHAT
           PERFORM MUST
           PERFORM TAKE-COUNT
           DISPLAY "  " FUNCTION TRIM(SHOWN-COUNT) " lines go first"
           MOVE GET-FORWARD TO GET-MODE
           PERFORM NEXT-LINE
           PERFORM UNTIL CHAIN-ENDED
               PERFORM DELETE-AND-SHOW-LINE
               PERFORM NEXT-LINE
           END-PERFORM.

      * An article goes from its automatic master with its last line.
       SHOW-ARTICLE-GONE.
           PERFORM FIND-ARTICLE
           IF NOT NO-RECORD
               MOVE "finding an article without lines" TO WHAT
               PERFORM UNEXPECTED
           END-IF
           DISPLAY "  " FUNCTION TRIM(WANTED-ARTICLE)
               " went with its last line: 17".

      * Serially, by record number: first back to the set's beginning.
       SHOW-ACCOUNTS.
           DISPLAY NEW-LINE "Accounts left"
           MOVE 0 TO CURSOR-RECORD(ACCOUNTS-SET)
           MOVE GET-NEXT TO GET-MODE
           PERFORM GET-ACCOUNT
           PERFORM UNTIL NOT CALL-DONE
               PERFORM SHOW-ACCOUNT
               PERFORM GET-ACCOUNT
           END-PERFORM
           IF NOT END-OF-SET
               MOVE "reading the accounts" TO WHAT
               PERFORM UNEXPECTED
           END-IF.

      ******************************************************************
      * What is printed
      ******************************************************************
       SHOW-ACCOUNT.
           DISPLAY "  " ACCOUNT-NO "  " ACCOUNT-NAME
               WITH NO ADVANCING
           PERFORM TAKE-RECORD
           MOVE RECORD-TAKEN TO SHOWN-NUMBER
           DISPLAY "  record " SHOWN-NUMBER.

      * The line with its record, if it has one, and the remark.
       SHOW-LINE.
           MOVE LINE-PRICE TO SHOWN-PRICE
           DISPLAY "  " LINE-ACCOUNT "  " LINE-ARTICLE "  "
               LINE-DATE(1:4) "-" LINE-DATE(5:2) "-" LINE-DATE(7:2)
               "  " SHOWN-PRICE WITH NO ADVANCING
           IF LINE-RECORD NOT = 0
               MOVE LINE-RECORD TO SHOWN-NUMBER
               DISPLAY "  record " SHOWN-NUMBER WITH NO ADVANCING
           END-IF
           DISPLAY FUNCTION TRIM(REMARK TRAILING)
           MOVE SPACES TO REMARK.

       TAKE-RECORD.
           COMPUTE RECORD-TAKEN =
               STATUS-RECORD-HIGH * 65536 + STATUS-RECORD-LOW
               ON SIZE ERROR PERFORM TOO-LARGE
           END-COMPUTE.

       TAKE-COUNT.
           COMPUTE SHOWN-COUNT =
               STATUS-COUNT-HIGH * 65536 + STATUS-COUNT-LOW
               ON SIZE ERROR PERFORM TOO-LARGE
           END-COMPUTE.

      * When something comes that the program has no answer to.
       MUST.
           IF NOT CALL-DONE
               PERFORM UNEXPECTED
           END-IF.

       UNEXPECTED.
           MOVE CONDITION-WORD TO SHOWN-CONDITION
           DISPLAY "prices: " FUNCTION TRIM(WHAT) ": condition "
               FUNCTION TRIM(SHOWN-CONDITION) UPON SYSERR
           PERFORM STOP-FAILED.

       TOO-LARGE.
           MOVE "a number is too large for its field" TO WHAT
           PERFORM STOP-HERE.

       STOP-HERE.
           DISPLAY "prices: " FUNCTION TRIM(WHAT) UPON SYSERR
           PERFORM STOP-FAILED.

       STOP-FAILED.
           MOVE 1 TO RETURN-CODE
           STOP RUN.

      ******************************************************************
      * Entries: words on the engine's side, fields on ours
      ******************************************************************
       GET-ACCOUNT.
           MOVE ACCOUNTS-SET TO SET-NO
           MOVE WANTED-ACCOUNT TO VALUE-WORD(1)
           MOVE ACCOUNT-LENGTH TO VALUE-LENGTH
           MOVE ACCOUNT-ENTRY-LENGTH TO ENTRY-LENGTH
           PERFORM CALL-GET
           IF CALL-DONE
               MOVE AE-ACCOUNT TO ACCOUNT-NO
               CALL "dbunpack" USING
                   BY REFERENCE AE-NAME(1) BY VALUE NAME-LENGTH
                   BY REFERENCE ACCOUNT-NAME BY VALUE NAME-TEXT-LENGTH
                   RETURNING CALL-CODE
               END-CALL
               PERFORM CHECK-CALL
           END-IF.

       PUT-ACCOUNT.
           MOVE ACCOUNTS-SET TO SET-NO
           MOVE ACCOUNT-ENTRY-LENGTH TO ENTRY-LENGTH
           MOVE ACCOUNT-NO TO AE-ACCOUNT
           CALL "dbpack" USING
               BY REFERENCE ACCOUNT-NAME BY VALUE NAME-TEXT-LENGTH
               BY REFERENCE AE-NAME(1) BY VALUE NAME-LENGTH
               RETURNING CALL-CODE
           END-CALL
           PERFORM CHECK-CALL
           PERFORM CALL-PUT.

       DELETE-ACCOUNT.
           MOVE ACCOUNTS-SET TO SET-NO
           PERFORM CALL-DELETE.

       GET-LINE.
           MOVE PRICES-SET TO SET-NO
           MOVE LINE-ENTRY-LENGTH TO ENTRY-LENGTH
           PERFORM CALL-GET
           IF CALL-DONE
               PERFORM ENTRY-TO-LINE
               PERFORM TAKE-LINE-RECORD
           END-IF.

       GET-LINE-BEHIND.
           MOVE GET-BACK TO GET-MODE
           PERFORM GET-LINE
           MOVE "reading the line behind" TO WHAT
           PERFORM MUST.

      * The next line of the chain in this direction, or CHAIN-ENDED.
       NEXT-LINE.
           PERFORM GET-LINE
           IF NOT CHAIN-ENDED
               MOVE "reading a chain" TO WHAT
               PERFORM MUST
           END-IF.

       PUT-LINE.
           PERFORM LINE-TO-ENTRY
           PERFORM CALL-PUT
           PERFORM TAKE-LINE-RECORD.

       UPDATE-LINE.
           PERFORM LINE-TO-ENTRY
           PERFORM CALL-UPDATE.

      * 0 after a refusal, since the status then has nine zeros.
       TAKE-LINE-RECORD.
           PERFORM TAKE-RECORD
           MOVE RECORD-TAKEN TO LINE-RECORD.

       LINE-TO-ENTRY.
           MOVE PRICES-SET TO SET-NO
           MOVE LINE-ENTRY-LENGTH TO ENTRY-LENGTH
           MOVE LINE-ACCOUNT TO LE-ACCOUNT
           CALL "dbpack" USING
               BY REFERENCE LINE-ARTICLE BY VALUE ARTICLE-TEXT-LENGTH
               BY REFERENCE LE-ARTICLE(1) BY VALUE ARTICLE-LENGTH
               RETURNING CALL-CODE
           END-CALL
           PERFORM CHECK-CALL
           MULTIPLY 100 BY LINE-PRICE GIVING CENTS
           DIVIDE CENTS BY 65536
               GIVING LE-PRICE-HIGH REMAINDER LE-PRICE-LOW
           DIVIDE LINE-DATE BY 65536
               GIVING LE-DATE-HIGH REMAINDER LE-DATE-LOW.

       ENTRY-TO-LINE.
           MOVE LE-ACCOUNT TO LINE-ACCOUNT
           CALL "dbunpack" USING
               BY REFERENCE LE-ARTICLE(1) BY VALUE ARTICLE-LENGTH
               BY REFERENCE LINE-ARTICLE BY VALUE ARTICLE-TEXT-LENGTH
               RETURNING CALL-CODE
           END-CALL
           PERFORM CHECK-CALL
           COMPUTE LINE-PRICE =
               (LE-PRICE-HIGH * 65536 + LE-PRICE-LOW) / 100
               ON SIZE ERROR PERFORM TOO-LARGE
           END-COMPUTE
           COMPUTE LINE-DATE = LE-DATE-HIGH * 65536 + LE-DATE-LOW
               ON SIZE ERROR PERFORM TOO-LARGE
           END-COMPUTE.

       FIND-ACCOUNT.
           MOVE PRICES-SET TO SET-NO
           MOVE ACCOUNT-ITEM TO ITEM-NO
           MOVE WANTED-ACCOUNT TO VALUE-WORD(1)
           MOVE ACCOUNT-LENGTH TO VALUE-LENGTH
           PERFORM CALL-FIND.

       FIND-ARTICLE.
           MOVE PRICES-SET TO SET-NO
           MOVE ARTICLE-ITEM TO ITEM-NO
           MOVE ARTICLE-LENGTH TO VALUE-LENGTH
           CALL "dbpack" USING
               BY REFERENCE WANTED-ARTICLE BY VALUE ARTICLE-TEXT-LENGTH
               BY REFERENCE VALUE-WORDS BY VALUE ARTICLE-LENGTH
               RETURNING CALL-CODE
           END-CALL
           PERFORM CHECK-CALL
           PERFORM CALL-FIND.

      ******************************************************************
      * The description of the base
      ******************************************************************
       DESCRIBE-BASE.
           INITIALIZE ROOT-WORDS
           MOVE 5 TO ROOT-ITEM-COUNT
           MOVE 3 TO ROOT-SET-COUNT
           PERFORM DESCRIBE-ITEMS
           PERFORM DESCRIBE-ACCOUNTS
           PERFORM DESCRIBE-ARTICLES
           PERFORM DESCRIBE-PRICES.

      * Prices are in cents, dates are yyyymmdd.
       DESCRIBE-ITEMS.
           MOVE TYPE-K TO ITEM-TYPE(ACCOUNT-ITEM)
           MOVE 1 TO ITEM-LENGTH(ACCOUNT-ITEM)
           MOVE TYPE-X TO ITEM-TYPE(NAME-ITEM)
           MOVE NAME-SIZE TO ITEM-LENGTH(NAME-ITEM)
           MOVE TYPE-X TO ITEM-TYPE(ARTICLE-ITEM)
           MOVE ARTICLE-SIZE TO ITEM-LENGTH(ARTICLE-ITEM)
           MOVE TYPE-K TO ITEM-TYPE(PRICE-ITEM)
           MOVE NUMBER-SIZE TO ITEM-LENGTH(PRICE-ITEM)
           MOVE TYPE-K TO ITEM-TYPE(DATE-ITEM)
           MOVE NUMBER-SIZE TO ITEM-LENGTH(DATE-ITEM).

       DESCRIBE-ACCOUNTS.
           MOVE KIND-MANUAL TO SET-KIND(ACCOUNTS-SET)
           MOVE 11 TO SET-CAPACITY(ACCOUNTS-SET)
           MOVE ACCOUNT-ITEM TO SET-KEY(ACCOUNTS-SET)
           MOVE 2 TO SET-ITEM-COUNT(ACCOUNTS-SET)
           MOVE ACCOUNT-ITEM TO SET-ITEM(ACCOUNTS-SET, 1)
           MOVE NAME-ITEM TO SET-ITEM(ACCOUNTS-SET, 2).

       DESCRIBE-ARTICLES.
           MOVE KIND-AUTOMATIC TO SET-KIND(ARTICLES-SET)
           MOVE 11 TO SET-CAPACITY(ARTICLES-SET)
           MOVE ARTICLE-ITEM TO SET-KEY(ARTICLES-SET)
           MOVE 1 TO SET-ITEM-COUNT(ARTICLES-SET)
           MOVE ARTICLE-ITEM TO SET-ITEM(ARTICLES-SET, 1).

       DESCRIBE-PRICES.
           MOVE KIND-DETAIL TO SET-KIND(PRICES-SET)
           MOVE 20 TO SET-CAPACITY(PRICES-SET)
           MOVE 4 TO SET-ITEM-COUNT(PRICES-SET)
           MOVE ACCOUNT-ITEM TO SET-ITEM(PRICES-SET, 1)
           MOVE ARTICLE-ITEM TO SET-ITEM(PRICES-SET, 2)
           MOVE PRICE-ITEM TO SET-ITEM(PRICES-SET, 3)
           MOVE DATE-ITEM TO SET-ITEM(PRICES-SET, 4)
           MOVE 2 TO SET-PATH-COUNT(PRICES-SET)
           MOVE ACCOUNTS-SET TO PATH-MASTER(PRICES-SET, 1)
           MOVE ACCOUNT-ITEM TO PATH-SEARCH(PRICES-SET, 1)
           MOVE DATE-ITEM TO PATH-SORT(PRICES-SET, 1)
           MOVE ARTICLES-SET TO PATH-MASTER(PRICES-SET, 2)
           MOVE ARTICLE-ITEM TO PATH-SEARCH(PRICES-SET, 2).

      ******************************************************************
      * The calls, each once; CONDITION-WORD then tells how it went
      ******************************************************************
       CALL-MAKE.
           CALL "dbmake" USING
               BY REFERENCE ROOT-WORDS BY VALUE ROOT-LENGTH
               BY REFERENCE AREA-WORDS BY VALUE AREA-LENGTH
               BY REFERENCE MALTORHU-STATUS BY VALUE STATUS-LENGTH
               RETURNING CALL-CODE
           END-CALL
           PERFORM CHECK-CALL.

       CALL-FIND.
           CALL "dbfind" USING
               BY REFERENCE ROOT-WORDS BY VALUE ROOT-LENGTH
               BY REFERENCE AREA-WORDS BY VALUE AREA-LENGTH
               BY REFERENCE MALTORHU-CURSORS BY VALUE CURSORS-LENGTH
               BY VALUE SET-NO BY VALUE ITEM-NO
               BY REFERENCE VALUE-WORDS BY VALUE VALUE-LENGTH
               BY REFERENCE MALTORHU-STATUS BY VALUE STATUS-LENGTH
               RETURNING CALL-CODE
           END-CALL
           PERFORM CHECK-CALL.

       CALL-GET.
           CALL "dbget" USING
               BY REFERENCE ROOT-WORDS BY VALUE ROOT-LENGTH
               BY REFERENCE AREA-WORDS BY VALUE AREA-LENGTH
               BY REFERENCE MALTORHU-CURSORS BY VALUE CURSORS-LENGTH
               BY VALUE SET-NO BY VALUE GET-MODE BY VALUE RECORD-NO
               BY REFERENCE VALUE-WORDS BY VALUE VALUE-LENGTH
               BY REFERENCE ENTRY-WORDS BY VALUE ENTRY-LENGTH
               BY REFERENCE MALTORHU-STATUS BY VALUE STATUS-LENGTH
               RETURNING CALL-CODE
           END-CALL
           PERFORM CHECK-CALL.

       CALL-PUT.
           CALL "dbput" USING
               BY REFERENCE ROOT-WORDS BY VALUE ROOT-LENGTH
               BY REFERENCE AREA-WORDS BY VALUE AREA-LENGTH
               BY REFERENCE MALTORHU-CURSORS BY VALUE CURSORS-LENGTH
               BY VALUE SET-NO
               BY REFERENCE ENTRY-WORDS BY VALUE ENTRY-LENGTH
               BY REFERENCE MALTORHU-STATUS BY VALUE STATUS-LENGTH
               BY REFERENCE MALTORHU-PASSED BY VALUE PASSED-LENGTH
               RETURNING CALL-CODE
           END-CALL
           PERFORM CHECK-CALL.

       CALL-UPDATE.
           CALL "dbupdate" USING
               BY REFERENCE ROOT-WORDS BY VALUE ROOT-LENGTH
               BY REFERENCE AREA-WORDS BY VALUE AREA-LENGTH
               BY REFERENCE MALTORHU-CURSORS BY VALUE CURSORS-LENGTH
               BY VALUE SET-NO
               BY REFERENCE ENTRY-WORDS BY VALUE ENTRY-LENGTH
               BY REFERENCE MALTORHU-STATUS BY VALUE STATUS-LENGTH
               RETURNING CALL-CODE
           END-CALL
           PERFORM CHECK-CALL.

       CALL-DELETE.
           CALL "dbdelete" USING
               BY REFERENCE ROOT-WORDS BY VALUE ROOT-LENGTH
               BY REFERENCE AREA-WORDS BY VALUE AREA-LENGTH
               BY REFERENCE MALTORHU-CURSORS BY VALUE CURSORS-LENGTH
               BY VALUE SET-NO
               BY REFERENCE MALTORHU-STATUS BY VALUE STATUS-LENGTH
               RETURNING CALL-CODE
           END-CALL
           PERFORM CHECK-CALL.

       CHECK-CALL.
           IF NOT CALL-WORKED
               MOVE "a table or text of the wrong length" TO WHAT
               PERFORM STOP-HERE
           END-IF.
