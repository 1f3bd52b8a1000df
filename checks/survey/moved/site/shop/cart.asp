<!--#include virtual="/myshop/top.inc"-->
<!--#include file="../../outside.inc"-->
