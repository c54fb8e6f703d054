bb0db1100000000008945fed29600000080fb30c562030000010000008041420030226df2dbe25416dc050000010000000000000000000000
? line 4: not a record; expected its bytes in hex, two of 0-9 a-f each, and nothing else
? line 5: not a record; expected its bytes in hex, two of 0-9 a-f each, and nothing else
? line 6: not a record; expected its bytes in hex, two of 0-9 a-f each, and nothing else
? line 7: not a record; expected its bytes in hex, two of 0-9 a-f each, and nothing else
bb0db1100000000008945fed29600000080fb30c562030000010000008041420030226df2dbe25416dc050000010000000000000000000000
