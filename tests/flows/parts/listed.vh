`define NUMBER 3
