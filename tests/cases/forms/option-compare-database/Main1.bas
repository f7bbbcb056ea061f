Option Compare Database
