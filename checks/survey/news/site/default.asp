<!--#include file="header.asp"-->
<!--#include file="inc\menu.inc"-->
<!-- #include file = news.inc -->
<!--#include virtual="/lib/util.lib"-->
<!--#include file="lib/config.txt"-->
<%= Stamp("2001") %>
<!--#include file="footer.asp"-->
